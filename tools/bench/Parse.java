/* Adds up the numbers of the input, and counts its lines. */
public class Parse {
    public static void main(String[] args) throws Exception {
        int sum = 0;
        int lines = 0;
        int number = 0;
        int c = System.in.read();
        while (c != -1) {
            if (c >= '0' && c <= '9') {
                number = number * 10 + (c - '0');
            } else {
                sum += number;
                number = 0;
                if (c == '\n') {
                    lines++;
                }
            }
            c = System.in.read();
        }
        System.out.println(lines + " lines, sum " + sum);
    }
}
