"""What the scripts give to the programs: tables of files and requests with their answers, and makers of random ones."""
