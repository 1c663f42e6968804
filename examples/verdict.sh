#!/bin/sh
# Tells a yes, a no and a refusal or fault apart by the status, for continuous integration.
ttx certify news.t42 news.toml news.cert
case $? in
0) echo "every page is seen" ;;
1) echo "not accepted, for the reason above: ttx refute looks for a viewer that fails" ;;
*) echo "nothing was judged" ;;
esac
