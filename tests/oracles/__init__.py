"""Plain, slow programs that say what an answer has to be. They share no code with the crates."""
