// Insertion sort with an off-by-one: the first element is never moved.
public class Sorting {
    static void sort(int[] a) {
        for (int i = 1; i < a.length; i++) {
            int x = a[i];
            int j = i - 1;
            while (j > 0 && a[j] > x) {
                a[j + 1] = a[j];
                j--;
            }
            a[j + 1] = x;
        }
    }

    public static void main(String[] args) {
        int[] a = { 5, 3, 8, 1, 4 };
        sort(a);
        String line = "";
        for (int i = 0; i < a.length; i++) {
            line += a[i] + " ";
        }
        System.out.println(line);
    }
}
