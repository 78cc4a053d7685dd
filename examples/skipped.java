// A line that an exception skips: the total is never printed.
public class Skipped {
    static int total;

    static void add(String text) {
        total = total + Integer.parseInt(text);
    }

    public static void main(String[] args) {
        String[] amounts = {"20", "3O", "50"};
        try {
            for (int i = 0; i < amounts.length; i++) {
                add(amounts[i]);
            }
            System.out.println("total " + total);
        } catch (NumberFormatException e) {
            System.out.println("not a number");
        }
    }
}
