package api;

/** There is no answer. */
public class Broken extends Exception {}
