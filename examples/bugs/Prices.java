// A discount that is always zero: whole numbers are divided before they are multiplied.
class Prices {
    static int reduced(int cents, int percent) {
        int discount = percent / 100 * cents;
        return cents - discount;
    }

    public static void main(String[] args) {
        int book = reduced(2000, 15);
        System.out.println("book " + book);
    }
}
