//! Stand-in for `lazy_static`: each static is a `LazyLock`, made at its first use.

#[macro_export]
macro_rules! lazy_static {
    ($($visibility:vis static ref $name:ident : $type:ty = $value:expr;)*) => {
        $($visibility static $name: ::std::sync::LazyLock<$type> = ::std::sync::LazyLock::new(|| $value);)*
    };
}
