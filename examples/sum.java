public class Sum {
  public static void main(String[] args) {
    int n = 10;
    int total = 0;
    int i = 1;
    while (i <= n) {
      total = total + i;
      i = i + 1;
    }
    System.out.println(total);
    System.out.println(n * (n + 1) - total * 2);
  }
}
