//! Stands in for the crate's src/programs: the attach types that obj.rs names, each in the order of its values in docs/CATALOGUE.md.
#[derive(Copy, Clone, Debug, PartialEq, Eq)]
pub enum CgroupSkbAttachType {
    Ingress,
    Egress,
}

#[derive(Copy, Clone, Debug, PartialEq, Eq)]
pub enum CgroupSockAddrAttachType {
    Bind4,
    Bind6,
    Connect4,
    Connect6,
    GetPeerName4,
    GetPeerName6,
    GetSockName4,
    GetSockName6,
    UDPSendMsg4,
    UDPSendMsg6,
    UDPRecvMsg4,
    UDPRecvMsg6,
}

#[derive(Copy, Clone, Debug, Default, PartialEq, Eq)]
pub enum CgroupSockAttachType {
    PostBind4,
    PostBind6,
    // Document 01: `cgroup/sock` has attach type socket creation.
    #[default]
    SockCreate,
    SockRelease,
}

#[derive(Copy, Clone, Debug, PartialEq, Eq)]
pub enum CgroupSockoptAttachType {
    Get,
    Set,
}

#[derive(Copy, Clone, Debug, PartialEq, Eq)]
pub enum SkReuseportAttachType {
    Select,
    SelectOrMigrate,
}

#[derive(Copy, Clone, Debug, PartialEq, Eq)]
pub enum SkSkbKind {
    StreamParser,
    StreamVerdict,
}

#[derive(Copy, Clone, Debug, PartialEq, Eq)]
pub enum XdpAttachType {
    Interface,
    CpuMap,
    DevMap,
}
