package api;

/** The host takes no connection. */
public class Refused extends Exception {}
