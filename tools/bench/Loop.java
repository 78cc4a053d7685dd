public class Loop {
  public static void main(String[] args) {
    int i = 0;
    int sum = 0;
    while (i < 56249) {
      sum = sum * 31 + i;
      i = i + 1;
    }
    System.out.println(sum);
  }
}
