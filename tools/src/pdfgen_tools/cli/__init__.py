"""The tools, a module each: main(words) does a call and answers its status."""
