// A matrix is turned in place, and each pair is swapped twice.
class Matrix {
    static void transpose(int[][] m) {
        for (int i = 0; i < m.length; i++) {
            for (int j = 0; j < m.length; j++) {
                int kept = m[i][j];
                m[i][j] = m[j][i];
                m[j][i] = kept;
            }
        }
    }

    public static void main(String[] args) {
        int[][] m = {{1, 2}, {3, 4}};
        transpose(m);
        System.out.println(m[0][1] + " should be 3");
    }
}
