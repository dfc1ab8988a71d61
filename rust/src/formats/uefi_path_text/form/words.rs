// @generated from proved source. It is not edited.

/// The words that an argument can be, each with the number that it stands for.
#[derive(Clone, Copy, Debug)]
pub(crate) enum Words {
    /// The channels of an ATAPI device.
    Channel,
    /// The devices of a channel.
    Drive,
    /// Network protocols.
    Protocol,
    /// Where an IPv4 address comes from.
    Ipv4Origin,
    /// Where an IPv6 address comes from.
    Ipv6Origin,
    /// The default of a serial port.
    Default,
    /// The parity of a serial port.
    Parity,
    /// The stop bits of a serial port.
    StopBits,
    /// The digest of the headers of iSCSI.
    HeaderDigest,
    /// The digest of the data of iSCSI.
    DataDigest,
    /// The authentication of iSCSI.
    Authentication,
    /// The protocol of iSCSI.
    Tcp,
    /// Nothing is known of a SAS device.
    NoTopology,
    /// The interface of a SAS device.
    SasInterface,
    /// The location of a SAS device.
    SasLocation,
    /// The connection of a SAS device.
    SasConnection,
    /// The flow control of a serial port.
    FlowControl,
    /// The format of a master boot record.
    Mbr,
    /// The format of a GUID partition table.
    Gpt,
    /// Zero, where a form has no other number.
    Zero,
    /// The types of boot devices.
    BootDevice,
}

impl Words {
    /// Returns the words with their numbers.
    #[inline]
    pub(crate) fn list(self) -> &'static [(&'static str, u64)] {
        match self {
            Words::Channel => &[("Primary", 0), ("Secondary", 1)],
            Words::Drive => &[("Master", 0), ("Slave", 1)],
            Words::Protocol => &[("TCP", 6), ("UDP", 17)],
            Words::Ipv4Origin => &[("DHCP", 0), ("Static", 1)],
            Words::Ipv6Origin => &[
                ("Static", 0),
                ("StatelessAutoConfigure", 1),
                ("StatefulAutoConfigure", 2),
            ],
            Words::Default => &[("DEFAULT", 0)],
            Words::Parity => &[("D", 0), ("N", 1), ("E", 2), ("O", 3), ("M", 4), ("S", 5)],
            Words::StopBits => &[("D", 0), ("1", 1), ("1.5", 2), ("2", 3)],
            Words::HeaderDigest => &[("None", 0), ("CRC32C", 0x2)],
            Words::DataDigest => &[("None", 0), ("CRC32C", 0x8)],
            Words::Authentication => &[("CHAP_BI", 0), ("None", 0x800), ("CHAP_UNI", 0x1000)],
            Words::Tcp => &[("TCP", 0)],
            Words::NoTopology => &[("NoTopology", 0)],
            Words::SasInterface => &[("SAS", 0), ("SATA", 0x10)],
            Words::SasLocation => &[("Internal", 0), ("External", 0x20)],
            Words::SasConnection => &[("Direct", 0), ("Expanded", 0x40)],
            Words::FlowControl => &[("None", 0), ("Hardware", 1), ("XonXoff", 2)],
            Words::Mbr => &[("MBR", 1)],
            Words::Gpt => &[("GPT", 2)],
            Words::Zero => &[("0", 0)],
            Words::BootDevice => &[
                ("Floppy", 1),
                ("HD", 2),
                ("CDROM", 3),
                ("PCMCIA", 4),
                ("USB", 5),
                ("Network", 6),
            ],
        }
    }
}
