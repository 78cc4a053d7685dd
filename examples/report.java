// A mutable argument: the highest mark is found by sorting, and then the first mark is another.
public class Report {
    static int highest(int[] marks) {
        for (int i = 1; i < marks.length; i++) {
            for (int j = i; j > 0 && marks[j] < marks[j - 1]; j--) {
                int swapped = marks[j];
                marks[j] = marks[j - 1];
                marks[j - 1] = swapped;
            }
        }
        return marks[marks.length - 1];
    }

    public static void main(String[] args) {
        int[] marks = { 8, 5, 9 };
        System.out.println("highest " + highest(marks));
        System.out.println("first " + marks[0]);
    }
}
