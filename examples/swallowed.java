// An exception that is swallowed: the second amount is no number, and the total lacks it without a word.
public class Swallowed {
    static int total = 0;

    static void add(String text) {
        try {
            total += Integer.parseInt(text);
        } catch (NumberFormatException e) {
        } finally {
            System.out.println("read " + text);
        }
    }

    public static void main(String[] args) {
        String[] amounts = { "20", "3O", "50" };
        for (int i = 0; i < amounts.length; i++) {
            add(amounts[i]);
        }
        System.out.println("total " + total);
    }
}
