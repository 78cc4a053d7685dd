// A discount from three pieces on that three pieces do not get: the price stays at its first value.
public class Coupon {
    static int price(int amount, int items) {
        int price = amount;
        if (items > 3) {
            price = amount - amount / 10;
        }
        return price;
    }

    public static void main(String[] args) {
        int items = 2;
        items = items + 1;
        System.out.println("price: " + price(50, items));
    }
}
