/* For hlsc: what the profile has of POSIX threads are words of it. */
