class Loops {
  public static void main(String[] args) {
    final int LAST = 0x10;
    boolean isEven = true;
    int n = 1;
    while (n <= LAST) {
      if (isEven == false) {
        System.out.print(n);
        System.out.print(-1 * n);
      }
      isEven = isEven != true;
      n = n + 5;
    }
    System.out.println();
    System.out.println(isEven);
  }
}
