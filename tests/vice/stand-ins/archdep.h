/* Stands in for the header of VICE's user interface and operating system. The five files use nothing of it. */
