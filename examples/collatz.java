public class Collatz {
  public static void main(String[] args) {
    int n = 27;
    int steps = 0;
    int highest = n;
    while (n != 1) {
      int half = 0;
      int rest = n;
      while (rest > 1) {
        rest = rest - 2;
        half = half + 1;
      }
      if (rest == 0) {
        n = half;
      } else {
        n = 3 * n + 1;
      }
      if (n > highest) {
        highest = n;
      }
      steps = steps + 1;
    }
    System.out.println(steps);
    System.out.println(highest);
  }
}
