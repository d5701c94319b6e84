# Scheme in Kakoune by scheme_ls: copy this file to ~/.config/kak/autoload/ or source it in kakrc. kak-lsp.toml beside it is for
# kak-lsp, which has to be installed and started as its own page says.

hook global BufCreate .*\.(scm|sld) %{
    set-option buffer filetype scheme
}

hook global WinSetOption filetype=scheme %{
    try %{ lsp-enable-window }
}
