//! Stands for the crate `emcyphal_driver`: frames and filter updates as plain data, and the three
//! traits through which a link drives the registries.

pub mod frame {
    use emcyphal_core::{Priority, ServiceId, SubjectId};

    #[derive(Debug, Clone, Copy, PartialEq, Eq)]
    pub enum Mtu {
        Classic,
        Fd,
    }

    impl From<Mtu> for usize {
        fn from(mtu: Mtu) -> Self {
            match mtu {
                Mtu::Classic => 8,
                Mtu::Fd => 64,
            }
        }
    }

    #[derive(Debug, Clone, Copy, PartialEq, Eq)]
    pub enum DataSpecifier {
        Message(SubjectId),
        Request(ServiceId),
        Response(ServiceId),
    }

    #[derive(Debug, Clone, Copy, PartialEq, Eq)]
    pub struct Header {
        pub priority: Priority,
        pub data_spec: DataSpecifier,
    }

    #[derive(Debug, Clone, PartialEq, Eq)]
    pub struct Frame {
        pub header: Header,
        pub data: Vec<u8>,
        pub loop_back: bool,
    }
}

pub mod link {
    use emcyphal_core::SubjectId;

    #[derive(Debug, Clone, Copy, PartialEq, Eq)]
    pub enum FilterUpdate {
        AddSubject(SubjectId),
        RemoveSubjectRange([SubjectId; 2]),
    }
}

pub mod internal {
    use crate::frame::{Frame, Mtu};
    use crate::link::FilterUpdate;
    use core::task::{Context, Poll};
    use emcyphal_core::PrioritySet;

    pub trait DynamicRx {
        fn poll_push(&self, cx: &mut Context<'_>, frame: &Frame, mtu: Mtu) -> Poll<()>;
    }

    pub trait DynamicRxFilter {
        fn poll_pop(&self, cx: &mut Context<'_>) -> Poll<FilterUpdate>;
    }

    pub trait DynamicTx {
        fn poll_pop(&self, cx: &mut Context, priority_mask: PrioritySet, mtu: Mtu) -> Poll<Frame>;
    }
}
