/** An interface with a constant and two methods, one of which throws. */
public interface Shape {
    String NAME = "shape \u00e9\u0000";

    int area(int[] sides, long scale);

    Object copy() throws CloneNotSupportedException;
}
