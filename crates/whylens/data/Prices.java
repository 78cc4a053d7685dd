class Prices {
  public static void main(String[] args) {
    int price = 4.95;
    System.out.println("price: " + price);
  }
}
