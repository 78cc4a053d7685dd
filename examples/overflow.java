public class Overflow {
  public static void main(String[] args) {
    int power = 1;
    int k = 0;
    while (power > 0) {
      power = power * 2;
      k = k + 1;
    }
    System.out.println(k);
    System.out.println(power);
    System.out.println(power - 1);
    System.out.println(2147483647 + 1);
  }
}
