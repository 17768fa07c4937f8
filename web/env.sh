# What tools/web and the tests of its page need. To be sourced, after tools/x86/env.sh.
#   need_page_packages   installs the Debian packages that build the page and are missing
#   need_web_packages    the same, and a browser to test it in
page_packages=(rustc cargo libstd-rust-dev-wasm32 lld python3)
need_page_packages() { install_missing "${page_packages[@]}"; }
need_web_packages() { install_missing "${page_packages[@]}" chromium fonts-dejavu-core; }
