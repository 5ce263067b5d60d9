package api;

/** What it throws where it is worse. */
public class Worse extends Broken {}
