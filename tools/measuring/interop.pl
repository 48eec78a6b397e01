# The peers of tools/measuring/interop: Net::SMPP as an ESME or as a message centre, told what to do line by line.
#
#     perl tools/measuring/interop.pl esme PORT
#     perl tools/measuring/interop.pl centre PORT
#
# Lines of standard input name a call of Net::SMPP and its words, as `submit_sm seq=0x1 short_message=6869`:
# what begins with `0x` is a number, else octets in hexadecimal; `tlv:TAG=HEX` is an optional parameter of
# any tag. `close` closes the link; from `hold` on to `go` a centre leaves submit_sm unanswered. What goes over the link is said on standard
# output, one line a PDU: `out COMMAND STATUS NUMBER BODY` and `in ..`, hexadecimal, and behind what
# came in the name of the PDU and the fields that Net::SMPP read. A centre answers binds, requests,
# enquire_link and unbind by itself; an ESME answers deliver_sm, data_sm and enquire_link.
use strict;
use warnings;
use IO::Select;
use Net::SMPP;

package Told;
our @ISA = ('Net::SMPP');
our $tail = '';

# Each PDU that Net::SMPP writes comes through here, whole.
sub syswrite {
    my ($me, $octets) = @_;
    if ($tail ne '') {
        $octets .= $tail;
        substr($octets, 0, 4) = pack 'N', length $octets;
        $tail = '';
    }
    my ($size, $command, $status, $number) = unpack 'NNNN', $octets;
    printf "out %08x %08x %08x %s\n", $command, $status, $number, unpack 'H*', substr $octets, 16;
    return $me->SUPER::syswrite($octets);
}

# An answer that is a header alone, of any command.
sub header {
    my ($me, %words) = @_;
    $me->resp_backend($words{command}, '', $me, seq => $words{seq}, status => $words{status});
}

package main;
$| = 1;
$SIG{__WARN__} = sub { print "warn $_[0]" };
my ($what, $port) = @ARGV;
my $link;
my $listener;
if ($what eq 'esme') {
    $link = Told->new_connect('127.0.0.1', port => $port, async => 1) or die "no connection\n";
} else {
    $listener = Told->new_listen('127.0.0.1', port => $port, async => 1) or die "no port\n";
}
print "ready\n";
my $messages = 0;
my $holds = 0;

# What the peer answers by itself.
sub answer {
    my ($pdu) = @_;
    my ($command, @seq) = ($pdu->{cmd}, seq => $pdu->{seq});
    if ($command == 0x04 && $holds) { return }
    elsif ($command == 0x15) { $link->enquire_link_resp(@seq) }
    elsif ($command == 0x06) { $link->unbind_resp(@seq) }
    elsif ($command == 0x05) { $link->deliver_sm_resp(@seq, message_id => '') }
    elsif ($what eq 'esme' && $command == 0x103) { $link->data_sm_resp(@seq, message_id => '') }
    elsif ($command == 0x09) { $link->bind_transceiver_resp(@seq, system_id => 'perl') }
    elsif ($command == 0x04) { $link->submit_sm_resp(@seq, message_id => sprintf 'id%d', ++$messages) }
    elsif ($command == 0x103) { $link->data_sm_resp(@seq, message_id => sprintf 'id%d', ++$messages) }
    elsif ($command == 0x21) { $link->submit_multi_resp(@seq, message_id => 'multi', destination_addr => '4999', error_status_code => 11) }
    elsif ($command == 0x03) { $link->query_sm_resp(@seq, message_id => 'id1', final_date => '', message_state => 2, error_code => 0) }
    elsif ($command == 0x07) { $link->replace_sm_resp(@seq) }
    elsif ($command == 0x08) { $link->cancel_sm_resp(@seq) }
}

sub hear {
    my $pdu = $link->read_pdu();
    if (!$pdu) {
        print "closed\n";
        $link = undef;
        return;
    }
    printf "in %08x %08x %08x %s %s", $pdu->{cmd}, $pdu->{status}, $pdu->{seq}, unpack('H*', $pdu->{data}), $pdu->explain_cmd;
    for my $field (sort keys %$pdu) {
        next if $field =~ /^(cmd|status|seq|data|reserved|known_pdu)$/ || !defined $pdu->{$field} || ref $pdu->{$field};
        printf " %s=%s", $field, unpack 'H*', $pdu->{$field};
    }
    print "\n";
    answer($pdu) if $pdu->{cmd} < 0x80000000;
}

sub obey {
    my ($line) = @_;
    my ($call, @words) = split / /, $line;
    if ($call eq 'close') { close $link; $link = undef; return; }
    if ($call eq 'hold' || $call eq 'go') { $holds = $call eq 'hold'; return; }
    my @pairs;
    for (@words) {
        my ($key, $value) = split /=/, $_, 2;
        if ($key =~ /^tlv:(.*)/) { $Told::tail .= pack 'nna*', oct $1, length($value) / 2, pack 'H*', $value; next; }
        push @pairs, $key, $value =~ /^0x/ ? oct $value : pack 'H*', $value;
    }
    $link->$call(@pairs);
}

my $rest = '';
while (1) {
    my $select = IO::Select->new(\*STDIN);
    $select->add($listener) if $listener && !$link;
    $select->add($link) if $link;
    for my $ready ($select->can_read(60)) {
        if (fileno $ready == 0) {
            sysread(STDIN, $rest, 1 << 20, length $rest) or exit;
            while ($rest =~ s/^(.*)\n//) { obey($1) }
        } elsif ($listener && $ready == $listener) {
            $link = $listener->accept();
        } elsif ($link) {
            hear();
        }
    }
}
