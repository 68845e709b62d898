//! Stands in for the crate `jxl-threadpool`: `run_with_threads` is left out of the port (01).

pub struct JxlThreadPool;

impl JxlThreadPool {
    pub fn for_each_vec<T>(&self, _items: Vec<T>, _each: impl Fn(T) + Sync) {
        unimplemented!("run_with_threads is left out");
    }
}
