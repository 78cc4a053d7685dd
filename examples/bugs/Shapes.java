// An area that is never asked for: the method's name differs by one letter, so nothing overrides.
class Shape {
    int area() {
        return 0;
    }
}

class Square extends Shape {
    int side;

    Square(int side) {
        this.side = side;
    }

    int aera() {
        return side * side;
    }
}

class Main {
    public static void main(String[] args) {
        Shape[] shapes = {new Square(2), new Square(3)};
        int sum = 0;
        for (int i = 0; i < shapes.length; i++) {
            sum += shapes[i].area();
        }
        System.out.println("sum " + sum);
    }
}
