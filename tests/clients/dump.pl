# Dumps random values by Perl's YAML::XS, a document each, and checks that each loads back.
#
#   dump.pl VALUES libyaml|drop-in
#
# The values are the same in each run. None has a character past U+FFFF, which the drop-in writes otherwise.
use strict;
use warnings;
use utf8;
use YAML::XS ();

my @words = ("", "yes", "no", "~", "1e3", "12:30", "---", "- a", "a: b", "# c", "<<", " a", "a ", "a\n", "a\n\nb\n", "é", "\x{2028}", "\x{fffd}中", "\t\e[0m");
my @letters = split //, "ab c-:#,[]{}&*!|>'\"%\@`?.019\n é中";
my $state = 1;
sub below { $state = ($state * 1103515245 + 12345) % 2147483648; return int($state / 65536) % $_[0] }
sub text { return below(5) < 2 ? $words[below(scalar @words)] : join "", map { $letters[below(scalar @letters)] } 1 .. (1, 3, 8, 30, 120)[below(5)] }
sub value {
    my $depth = shift;
    my $kind = below(10);
    return [map { value($depth - 1) } 1 .. below(4)] if $depth && $kind < 3;
    return {map { (text() => value($depth - 1)) } 1 .. below(4)} if $depth && $kind < 6;
    return $kind == 6 ? undef : text();
}
sub shown { my $given = shift; return !defined $given ? "u" : !ref $given ? "t" . length($given) . $given : ref $given eq "ARRAY"
    ? "a(" . join(",", map { shown($_) } @$given) . ")" : "h(" . join(",", map { shown($_) . "=" . shown($given->{$_}) } sort keys %$given) . ")" }

my ($values, $emitter) = @ARGV;
open my $maps, "<", "/proc/self/maps" or die;
die "dump.pl: not with $emitter\n" if !!(grep { /libyaml_emitter/ } <$maps>) != ($emitter eq "drop-in");
for my $number (1 .. $values) {
    my $given = value(3);
    local $YAML::XS::Indent = (2, 4, 9)[below(3)];
    my $dumped = YAML::XS::Dump($given);
    die "dump.pl: value $number doesn't load back: $dumped\n" if shown(YAML::XS::Load($dumped)) ne shown($given);
    print $dumped;
}
