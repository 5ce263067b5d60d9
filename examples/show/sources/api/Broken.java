package api;

public class Broken extends Exception {
}
