package api;

/** What the library throws. */
public class Broken extends Exception {}
