// A forgotten else: a member gets the price of a guest.
public class Discount {
    static int price(boolean member, int amount) {
        int price = amount;
        if (member) {
            price = amount - amount / 10;
        }
        if (amount > 100) {
            price = amount - 5;
        }
        return price;
    }

    public static void main(String[] args) {
        System.out.println("guest:  " + price(false, 80));
        System.out.println("member: " + price(true, 80));
        System.out.println("member: " + price(true, 200));
    }
}
