# Plans, certifies and judges news.toml; news.yes has the verdict. A refused command leaves OUT empty, and a full disk leaves it
# incomplete: so each command writes to another file, which is renamed when it is whole. A status other than 0 stops make before the mv.
all: news.yes

news.t42: news.toml
	ttx plan news.toml news.t42.new
	mv news.t42.new news.t42

news.cert: news.t42
	ttx find news.t42 news.toml news.cert.new
	mv news.cert.new news.cert

news.yes: news.cert
	ttx certify news.t42 news.toml news.cert > news.yes.new
	mv news.yes.new news.yes
