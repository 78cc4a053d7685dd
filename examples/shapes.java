// The constructor of the superclass calls a method that the subclass overrides, before the subclass has its side.
abstract class Shape {
    private final String label;

    Shape() {
        label = "area " + area();
    }

    abstract int area();

    public String toString() {
        return label;
    }
}

class Square extends Shape {
    private int side;

    Square(int side) {
        this.side = side;
    }

    int area() {
        return side * side;
    }
}

public class Shapes {
    public static void main(String[] args) {
        Square square = new Square(4);
        System.out.println(square);
        System.out.println("now " + square.area());
    }
}
