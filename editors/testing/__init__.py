"""The tests of the packages for Emacs and Neovim: editors/test runs them."""
