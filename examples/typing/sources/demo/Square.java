package demo;

public class Square implements Shape {
    protected int side;

    public Square(int side) {
        this.side = side < 0 ? -side : side;
    }

    public int size() {
        return side * side;
    }

    Square grown(int by) {
        return by == 0 ? this : new Square(side + by);
    }
}
