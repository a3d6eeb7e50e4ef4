"""Clear as a service: OCPI 2.2.1 over HTTP and clearing around the program `clear`."""
