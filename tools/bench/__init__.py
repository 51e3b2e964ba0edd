"""What `./x bench` times the library on."""
