package api;

/** What can be kept. */
public interface Kept {}
