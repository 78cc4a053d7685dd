// The least age, sought one place too far.
public class Youngest {
    static int youngest(int[] ages) {
        int found = ages[0];
        for (int i = 1; i <= ages.length; i++) {
            if (ages[i] < found) {
                found = ages[i];
            }
        }
        return found;
    }

    public static void main(String[] args) {
        int[] ages = {9, 7};
        System.out.println("youngest " + youngest(ages));
    }
}
