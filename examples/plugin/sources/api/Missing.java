package api;

/** There is no such note. */
public class Missing extends Exception {}
