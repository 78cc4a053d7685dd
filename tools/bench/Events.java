/* A loop of 3,900,000 events, near the limit of 4,000,000. */
public class Events {
    public static void main(String[] args) {
        int i = 0;
        int sum = 0;
        while (i < 1300000) {
            sum = sum + i;
            i = i + 1;
        }
        System.out.println(sum);
    }
}
