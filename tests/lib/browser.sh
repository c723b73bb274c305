# Sourced after tools.sh: a browser without a screen, and what drives it, from Debian's packages. Where they cannot be
# installed nothing can be said of the page, which is a failure and not left out.
#   PYTHON   Debian's python3, for which its selenium is: it need not be the first one on the path
PYTHON=/usr/bin/python3
for tool in chromium:chromium chromedriver:chromium-driver; do
    need "${tool%:*}" "${tool#*:}"
done
$PYTHON -c 'import selenium' 2>/dev/null || need 'selenium of python3' python3 python3-selenium
