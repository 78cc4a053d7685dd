class Main {
  public static void main(String[] args) {
    int apples = 3;
    int pears = apples > 2;
    System.out.println(apples + pears);
  }
}
