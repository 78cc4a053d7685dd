public class Fibonacci {
  public static void main(String[] args) {
    int a = 0;
    int b = 1;
    int count = 0;
    while (count < 12) {
      System.out.println(a);
      int next = a + b;
      a = b;
      b = next;
      count = count + 1;
    }
  }
}
