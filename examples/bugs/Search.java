// A binary search that never looks at the last place.
class Search {
    static int find(int[] sorted, int wanted) {
        int low = 0;
        int high = sorted.length - 1;
        while (low < high) {
            int middle = (low + high) / 2;
            if (sorted[middle] == wanted) {
                return middle;
            }
            if (sorted[middle] < wanted) {
                low = middle + 1;
            } else {
                high = middle - 1;
            }
        }
        return -1;
    }

    public static void main(String[] args) {
        int[] primes = {2, 3, 5, 7, 11, 13, 17};
        System.out.println("7 is at " + find(primes, 7));
        System.out.println("17 is at " + find(primes, 17));
    }
}
