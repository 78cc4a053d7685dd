// The average of four marks is 8, but this prints 6: the loop leaves out the last mark.
public class Average {
    static int sum(int[] marks) {
        int total = 0;
        for (int i = 0; i < marks.length - 1; i++) {
            total += marks[i];
        }
        return total;
    }

    public static void main(String[] args) {
        int[] marks = { 6, 9, 10, 7 };
        int average = sum(marks) / marks.length;
        System.out.println("average: " + average);
    }
}
