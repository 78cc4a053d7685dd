class Board {
  static String[] cells = new String[9];

  static void mark(int row, int column) {
    cells[row * 3 + column] = ".";
    if (row == column) {
      cells[row * 3 + column] = "x";
    } else if (row + column == 3) {
      cells[row * 3 + column] = "x";
    }
  }

  public static void main(String[] args) {
    for (int row = 0; row < 3; row++) {
      for (int column = 0; column < 3; column++) {
        mark(row, column);
      }
    }
    for (int i = 0; i < 9; i = i + 3) {
      System.out.println(cells[i] + cells[i + 1] + cells[i + 2]);
    }
  }
}
