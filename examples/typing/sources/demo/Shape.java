package demo;

/** A thing with a size; two classes implement it. */
public interface Shape {
    int size();
}
