/* Sorts 100,000 ints by their bytes, from the lowest on. */
public class Sort {
    static int[] byDigit(int[] from, int shift) {
        int[] places = new int[1025];
        for (int i = 0; i < from.length; i++) {
            places[(from[i] >> shift & 1023) + 1]++;
        }
        for (int d = 1; d < 1025; d++) {
            places[d] += places[d - 1];
        }
        int[] to = new int[from.length];
        for (int i = 0; i < from.length; i++) {
            to[places[from[i] >> shift & 1023]++] = from[i];
        }
        return to;
    }

    public static void main(String[] args) {
        int[] numbers = new int[100000];
        int seed = 7;
        for (int i = 0; i < numbers.length; i++) {
            seed = seed * 1103515245 + 12345;
            numbers[i] = seed >>> 12;
        }
        numbers = byDigit(byDigit(numbers, 0), 10);
        System.out.println(numbers[0] + " " + numbers[50000] + " " + numbers[99999]);
    }
}
