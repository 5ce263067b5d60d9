package api;

/** It is not the number of the card. */
public class Wrong extends Exception {}
