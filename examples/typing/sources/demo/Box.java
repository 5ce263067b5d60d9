package demo;

/** A subclass, whose constructor calls that of its superclass with what a condition gives. */
public class Box extends Square {
    static int made;
    private final Object inside;

    public Box(int side, Object inside) {
        super(inside instanceof Shape ? ((Shape) inside).size() : side);
        this.inside = inside;
        made++;
    }

    Object inside() {
        return inside == null ? (Object) "nothing" : inside;
    }
}
